"""What `why` is asked, answers of its forms, and reasons with a slip each."""
