"""FastAPI, CORS: origins by a pattern, given to add_middleware."""
# pattern: 'https://.*\\.example\\.org'
from fastapi import FastAPI
from fastapi.middleware.cors import CORSMiddleware
app = FastAPI()
app.add_middleware(CORSMiddleware, allow_origin_regex=r"https://.*\.example\.org", allow_methods=["*"])
