"""The checks of this repository: checks/list.txt has them."""
