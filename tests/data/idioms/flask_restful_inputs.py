"""Flask-RESTful and Flask-RESTX: an argument's type by a pattern."""
# pattern: '^[0-9]{4}-[a-z]+$'
from flask_restful import inputs, reqparse
parser = reqparse.RequestParser()
parser.add_argument("key", type=inputs.regex("^[0-9]{4}-[a-z]+$"))
