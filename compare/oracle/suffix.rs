//! Stand-in: the original's file is not part of what is compared.
