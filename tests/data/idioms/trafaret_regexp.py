"""trafaret: Regexp."""
# pattern: '\\d{2}:\\d{2}'
import trafaret as t
time_of_day = t.Regexp(r"\d{2}:\d{2}")
