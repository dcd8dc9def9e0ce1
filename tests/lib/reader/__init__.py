"""A reader of messages that takes nothing from the crates: it is written by the text of the standards, and answers what
certview is to show of each field."""
