--  A record is finalized before its components, and these in the order that is chosen (RM 7.6.1).
with Ada.Finalization; use Ada.Finalization;
with Ada.Text_IO;      use Ada.Text_IO;

procedure Whole_Before_Parts is
   type T is new Controlled with record
      N : Integer := 0;
   end record;

   overriding procedure Adjust (X : in out T);
   overriding procedure Finalize (X : in out T);

   procedure Adjust (X : in out T) is
   begin
      Put_Line ("A" & Integer'Image (X.N));
   end Adjust;

   procedure Finalize (X : in out T) is
   begin
      Put_Line ("F" & Integer'Image (X.N));
   end Finalize;
begin
   declare
      type R is new Limited_Controlled with record
         A, B : T;
      end record;

      overriding procedure Finalize (X : in out R);

      procedure Finalize (X : in out R) is
      begin
         Put_Line ("whole");
      end Finalize;

      V : R;
   begin
      V.A.N := 1;
      V.B.N := 2;
   end;
end Whole_Before_Parts;
