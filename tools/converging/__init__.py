"""Sites that write in one text at the same time, what their operations show by the definition, and orders in which others take them."""
