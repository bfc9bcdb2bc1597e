"""oslo.config: a text option that a pattern checks."""
# pattern: '^[a-z]+(\\.[a-z]+)*$'
from oslo_config import cfg
opts = [cfg.StrOpt("domain", default="a.b", regex=r"^[a-z]+(\.[a-z]+)*$", help="The domain.")]
