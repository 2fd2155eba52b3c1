"""tonekit: check, judge, show, write and draw the files of a tone station, over the proved programs."""
__version__ = '1.0.0'
