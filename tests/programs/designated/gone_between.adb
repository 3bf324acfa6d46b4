--  The target of an assignment is gone when its value has been evaluated: the run stops (RM 13.11.2).
with Ada.Text_IO; use Ada.Text_IO;
with Ada.Unchecked_Deallocation;

procedure Gone_Between is
   type Ref is access Integer;

   procedure Free is new Ada.Unchecked_Deallocation (Integer, Ref);

   X : Ref := new Integer'(5);
   Y : Ref := X;

   function Dropped return Integer is
   begin
      Free (Y);
      Put_Line ("dropped");
      return 1;
   end Dropped;
begin
   X.all := Dropped;
   Put_Line ("not reached");
end Gone_Between;
