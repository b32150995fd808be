INSERT DATA { <http://u.example/ann> a <http://u.example/Student> }
