// Events: nothing of it is named here.
