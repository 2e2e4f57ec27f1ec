//! Not among the papers; nothing that is compiled here uses it.
