--  The object is freed by a later actual: the body is still executed, and then the program is stopped (RM 6.4, 6.4.1, 13.11.2).
with Ada.Text_IO; use Ada.Text_IO;
with Ada.Unchecked_Deallocation;

procedure Freed_By_A_Later_Actual is
   type Ref is access Integer;

   procedure Free is new Ada.Unchecked_Deallocation (Integer, Ref);

   X : Ref := new Integer'(1);
   Y : Ref := X;

   function Freed return Integer is
   begin
      Free (Y);
      return 4;
   end Freed;

   procedure Add (N : in out Integer; M : in Integer) is
   begin
      N := N + M;
      Put_Line (Integer'Image (N));
   end Add;
begin
   Add (X.all, Freed);
   Put_Line ("never");
end Freed_By_A_Later_Actual;
