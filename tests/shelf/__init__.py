"""What tests/front_shelf reads of the crates."""
