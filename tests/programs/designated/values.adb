--  An access value may designate a number, a truth value or a size (RM 3.10). Such an object begins with the value of its allocator, or as its
--  type does (RM 4.8), and two access values of one object see one value.
with Ada.Text_IO;             use Ada.Text_IO;
with System.Storage_Elements; use System.Storage_Elements;

procedure Values is
   type Number is access Integer;
   type Truth is access Boolean;
   type Size is access Storage_Count;

   X : Number := new Integer'(5);
   Y : Number := X;
   Z : Truth  := new Boolean;
   W : Size   := new Storage_Count'(16);
begin
   X.all := X.all + 1;
   Put_Line (Integer'Image (Y.all) & Boolean'Image (X = Y));
   Y := new Integer;
   Put_Line (Integer'Image (Y.all) & Boolean'Image (X /= Y));
   Z.all := not Z.all;
   Put_Line (Boolean'Image (Z.all));
   W.all := W.all * 2;
   Put_Line (Boolean'Image (W.all = 32));
end Values;
