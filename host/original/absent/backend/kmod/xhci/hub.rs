// The root hub: nothing of it is named here.
