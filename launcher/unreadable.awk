# What is said of a file that can't be read: `what` it is, its name, and `why`, from the environment.

BEGIN { print ENVIRON["name"] ": the " ENVIRON["what"] " " shown(ENVIRON["file"]) " can't be read: " ENVIRON["why"] }
