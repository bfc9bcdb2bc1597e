"""Plain Python: the value of an enum's member."""
# pattern: '^E\\d{3}$'
import enum
import re
class Form(enum.Enum):
    ERROR = r"^E\d{3}$"
    WARNING = "^W"
def is_error(text):
    return re.match(Form.ERROR.value, text)
