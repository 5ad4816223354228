"""One page that shows a recording: what the command `report` is made of."""
