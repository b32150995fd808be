PREFIX c: <http://c.example/>
# The wheel is no part any more; that it is a product stays.
DELETE DATA { c:wheel a c:Part }
