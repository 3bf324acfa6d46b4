--  A number is freed: the variable becomes null, and another access value of the object leads to nothing (RM 13.11.2).
with Ada.Text_IO; use Ada.Text_IO;
with Ada.Unchecked_Deallocation;

procedure Freed is
   type Ref is access Integer;

   procedure Free is new Ada.Unchecked_Deallocation (Integer, Ref);

   X : Ref := new Integer'(5);
   Y : Ref := X;
begin
   Free (X);
   Put_Line (Boolean'Image (X = null) & Boolean'Image (Y = null));
   Put_Line (Integer'Image (Y.all));
end Freed;
