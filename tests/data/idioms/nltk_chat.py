"""NLTK, chat: pairs of a pattern and its answers."""
# pattern: 'I need (.*)'
# pattern: "Why don't you (.*)"
from nltk.chat.util import Chat, reflections
pairs = ((r"I need (.*)", ("Why do you need %1?",)), (r"Why don't you (.*)", ("Should I?",)))
eliza = Chat(pairs, reflections)
