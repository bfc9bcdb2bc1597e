"""Flask-CORS: origins that have special characters are patterns."""
# pattern: 'https://.*\\.example\\.com'
from flask import Flask
from flask_cors import CORS
app = Flask(__name__)
CORS(app, origins=r"https://.*\.example\.com")
