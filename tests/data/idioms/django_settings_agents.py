"""Django, settings: agents that may not visit are compiled patterns."""
# pattern: '^SiteSucker.*'
import re
DISALLOWED_USER_AGENTS = [re.compile(r"^NaverBot.*"), re.compile(r"^SiteSucker.*")]
