"""The parts of a page that shows a history. `page` puts the page together from the section of each
register, a section from figures, and a figure from a scene: windows, bars, lanes and an axis."""
