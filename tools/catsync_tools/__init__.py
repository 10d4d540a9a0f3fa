"""What tools/picture and tools/explore share: outputs of catsync, their folds, pictures, scripts and schedules."""
