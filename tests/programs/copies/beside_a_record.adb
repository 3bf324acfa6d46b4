--  A record is passed by reference beside a copy (RM 6.2). A return statement out of a loop and a block is a normal
--  return, and sends copies back (RM 6.5).
with Ada.Text_IO; use Ada.Text_IO;

procedure Beside_A_Record is
   type R is record
      N : Integer := 3;
   end record;

   V : R;

   procedure P (X : in out R; Found : out Boolean; Where : in out Integer) is
   begin
      for I in 1 .. 9 loop
         declare
            K : Integer := I * I;
         begin
            if K > Where then
               X.N := K;
               Where := I;
               Found := True;
               return;
            end if;
         end;
      end loop;
   end P;

   B : Boolean;
   W : Integer := 20;
begin
   P (V, B, W);
   Put_Line (Integer'Image (V.N) & Boolean'Image (B) & Integer'Image (W));
   W := 90;
   P (V, B, W);
   Put_Line (Integer'Image (V.N) & Boolean'Image (B) & Integer'Image (W));
end Beside_A_Record;
