--  A number is freed twice: the run stops (RM 13.11.2).
with Ada.Unchecked_Deallocation;

procedure Twice is
   type Ref is access Integer;

   procedure Free is new Ada.Unchecked_Deallocation (Integer, Ref);

   X : Ref := new Integer'(5);
   Y : Ref := X;
begin
   Free (X);
   Free (Y);
end Twice;
