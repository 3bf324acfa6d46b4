--  The object is freed while the procedure is called: its component takes no copy, and the program is stopped (RM 6.4.1, 13.11.2).
with Ada.Text_IO; use Ada.Text_IO;
with Ada.Unchecked_Deallocation;

procedure Freed_By_The_Body is
   type R is record
      N : Integer := 1;
   end record;

   type Ref is access R;

   procedure Free is new Ada.Unchecked_Deallocation (R, Ref);

   X : Ref := new R;
   Y : Ref := X;

   procedure Set (N : in out Integer) is
   begin
      Free (Y);
      N := 9;
      Put_Line (Integer'Image (N));
   end Set;
begin
   Set (X.all.N);
   Put_Line ("never");
end Freed_By_The_Body;
