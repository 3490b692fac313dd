items
