"""Not proved: what the tests of native/ share."""
