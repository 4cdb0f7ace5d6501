//! Stands for a module that no ported stage uses. It is empty.
