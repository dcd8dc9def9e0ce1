"""What openssl prints of files, beside the fields that certview has of them.

Each function takes the file and the fields of its message, and answers what differs, with how many it compared."""
