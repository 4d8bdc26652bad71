//! Stand-in for the module of this name, of which the six files use nothing.
