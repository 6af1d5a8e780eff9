"""What a reader must believe: the definitions that contracts reach, their shelves and places in the paper, and the book."""
