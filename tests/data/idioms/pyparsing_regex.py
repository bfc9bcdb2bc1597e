"""pyparsing: Regex as a token, with flags."""
# pattern: '[+-]?(((\\d+\\.\\d*)|(\\d*\\.\\d+))([eE][+-]?\\d+)?)|([+-]?\\d+)'
import pyparsing as pp
realnum = pp.Regex(r"[+-]?(((\d+\.\d*)|(\d*\.\d+))([eE][+-]?\d+)?)|([+-]?\d+)").set_name("real")
