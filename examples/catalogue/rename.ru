PREFIX c: <http://c.example/>
# A functional identifier is replaced by inserting the new one.
INSERT DATA { c:wheel c:code 18 ; c:title 'Wheel'@en }
