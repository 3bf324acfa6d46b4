--  Two collections that are frozen at one place end together: their members are chosen among as those of one
--  (RM 7.6.1, 13.14).
with Ada.Finalization; use Ada.Finalization;
with Ada.Text_IO;      use Ada.Text_IO;

procedure Together is
   type T is new Controlled with record
      N : Integer := 0;
   end record;

   overriding procedure Finalize (X : in out T);

   procedure Finalize (X : in out T) is
   begin
      Put_Line ("F" & Integer'Image (X.N));
   end Finalize;
begin
   declare
      type Left is access T;
      type Right is access T;

      procedure Both is
      begin
         null;
      end Both;

      A : Left;
      B : Right;
   begin
      A := new T;
      A.N := 1;
      B := new T;
      B.N := 2;
      A := new T;
      A.N := 3;
   end;
end Together;
