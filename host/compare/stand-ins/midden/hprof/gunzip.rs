//! Stand-in for the unpublished file: nothing of it is named here.
