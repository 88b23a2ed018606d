"""Cases by a seed: templates, data and partials over the whole language, none taken from the worked rows."""
