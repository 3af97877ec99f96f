// Transfers of other controllers: nothing of it is named here.
