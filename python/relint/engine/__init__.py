"""The two proved programs: how they are found, run, and asked."""
