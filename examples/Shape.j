; An interface: what has an area. Square.j implements it.
.interface public Shape
.super java/lang/Object
.field public static final CORNERS I = 4
.method public abstract area()I
.end method
