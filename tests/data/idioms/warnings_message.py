"""warnings: filterwarnings takes a pattern for the start of the message."""
# pattern: '.*uses deprecated.*'
import warnings
warnings.filterwarnings("ignore", message=".*uses deprecated.*", category=DeprecationWarning)
