"""oslo.config, types: String with a pattern, flags by ignore_case."""
# pattern: '^[A-Za-z0-9-]{1,63}$'
from oslo_config import cfg, types
opt = cfg.Opt("host", type=types.String(max_length=63, regex=r"^[A-Za-z0-9-]{1,63}$"))
