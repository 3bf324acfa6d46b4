--  A number is freed by an access value of another type than that of its allocator: the run stops (RM 13.11.2).
with Ada.Text_IO; use Ada.Text_IO;
with Ada.Unchecked_Deallocation;

procedure Foreign is
   type Ref is access Integer;
   type General is access all Integer;

   procedure Free is new Ada.Unchecked_Deallocation (Integer, General);

   X : Ref     := new Integer'(5);
   Z : General := General (X);
begin
   Put_Line (Integer'Image (Z.all));
   Free (Z);
end Foreign;
