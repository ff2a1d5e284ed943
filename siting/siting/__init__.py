"""Sites on a planner's own maps, with a bound that holds for them."""
