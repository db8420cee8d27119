"""What `explain` is made of: each module has one idea, and says it first."""
