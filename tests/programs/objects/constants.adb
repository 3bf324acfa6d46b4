--  A constant of a record type is adjusted where it is declared, is read and assigned from, and goes with its master
--  (RM 3.3.1, 7.6, 7.6.1).
with Ada.Finalization; use Ada.Finalization;
with Ada.Text_IO;      use Ada.Text_IO;

procedure Constants is
   type T is new Controlled with record
      N : Integer := 1;
   end record;

   overriding procedure Adjust (X : in out T);
   overriding procedure Finalize (X : in out T);

   procedure Adjust (X : in out T) is
   begin
      X.N := X.N + 1;
      Put_Line ("A" & Integer'Image (X.N));
   end Adjust;

   procedure Finalize (X : in out T) is
   begin
      Put_Line ("F" & Integer'Image (X.N));
   end Finalize;

   V : T;
   C : constant T := V;
begin
   V.N := 7;
   V := C;
   Put_Line (Integer'Image (C.N) & Integer'Image (V.N));
end Constants;
