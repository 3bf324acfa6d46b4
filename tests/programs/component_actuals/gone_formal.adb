--  A formal whose object was freed: its component is found, a copy that begins with 0 is passed, and what it holds goes nowhere
--  (RM 6.4.1, 13.11.2).
with Ada.Text_IO; use Ada.Text_IO;
with Ada.Unchecked_Deallocation;

procedure Gone_Formal is
   type R is record
      N : Integer := 1;
   end record;

   type Ref is access R;

   procedure Free is new Ada.Unchecked_Deallocation (R, Ref);

   X : Ref := new R;

   procedure Set (N : out Integer) is
   begin
      Put_Line (Integer'Image (N));
      N := 9;
   end Set;

   procedure Outer (Z : in out R) is
   begin
      Free (X);
      Set (Z.N);
      Put_Line ("never");
   end Outer;
begin
   Outer (X.all);
end Gone_Formal;
