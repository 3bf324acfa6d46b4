--  The blocks of a pool are as large as it says and no larger: a request for 16 storage units finds none in one of 12
--  (RM 13.11).
with Ada.Finalization; use Ada.Finalization;
with Ada.Text_IO;      use Ada.Text_IO;
with Block_Pools;      use Block_Pools;

procedure Block_Below_The_Request is
   type T is new Controlled with record
      N : Integer := 0;
   end record;

   overriding procedure Adjust (X : in out T);
   overriding procedure Finalize (X : in out T);

   procedure Adjust (X : in out T) is
   begin
      Put_Line ("A" & Integer'Image (X.N));
   end Adjust;

   procedure Finalize (X : in out T) is
   begin
      Put_Line ("F" & Integer'Image (X.N));
   end Finalize;
begin
   declare
      P : Block_Pool (12, 1);

      type Ref is access T;

      for Ref'Storage_Pool use P;

      A : Ref;
   begin
      A := new T;
   exception
      when Storage_Error =>
         Put_Line ("SE");
   end;
end Block_Below_The_Request;
