"""`dsc-report`: who is in distress, and who still waits, from logs of sentences of several stations."""
