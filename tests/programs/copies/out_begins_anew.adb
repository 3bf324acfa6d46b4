--  An `out` copy of a scalar type begins at 0 or False here, whatever the actual has: the manual gives it no value
--  (RM 6.4.1).
with Ada.Text_IO; use Ada.Text_IO;

procedure Out_Begins_Anew is
   N : Integer := 5;
   B : Boolean := True;

   procedure P (M : out Integer; C : out Boolean; K : Integer) is
   begin
      Put_Line (Integer'Image (M) & Boolean'Image (C) & Integer'Image (K));
      M := K;
   end P;
begin
   P (N, B, N + 1);
   Put_Line (Integer'Image (N) & Boolean'Image (B));
end Out_Begins_Anew;
