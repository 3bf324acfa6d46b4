--  A return statement inside of two blocks: their objects are finalized from the innermost on, and then the call has the
--  record (RM 6.5, 7.6.1).
with Ada.Finalization; use Ada.Finalization;
with Ada.Text_IO;      use Ada.Text_IO;

procedure Through_Blocks is
   type R is record
      A : Integer;
      B : Integer;
   end record;

   type Guard is new Limited_Controlled with record
      N : Integer := 0;
   end record;

   overriding procedure Finalize (X : in out Guard);

   procedure Finalize (X : in out Guard) is
   begin
      Put_Line ("F" & Integer'Image (X.N));
   end Finalize;

   function F return R is
      V : R;
      G : Guard;
   begin
      G.N := 1;
      declare
         H : Guard;
      begin
         H.N := 2;
         declare
            I : Guard;
         begin
            I.N := 3;
            V.A := 4;
            V.B := 5;
            return V;
         end;
      end;
   end F;

   X : R := F;
begin
   Put_Line (Integer'Image (X.A) & Integer'Image (X.B));
end Through_Blocks;
