"""Tornado, routing: rules with matchers of paths and hosts."""
# pattern: '/app1.*'
# pattern: '(www\\.)?example\\.com'
from tornado.routing import HostMatches, PathMatches, Rule, RuleRouter
router = RuleRouter([Rule(PathMatches(r"/app1.*"), app1), Rule(HostMatches(r"(www\.)?example\.com"), app2)])
