"""What `ae` is made of: a reader of a project's records, and a module for each group of its commands."""
